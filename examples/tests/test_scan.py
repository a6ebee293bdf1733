"""A test of a scanner by pytest: it has to find both services of a recording. `pytest examples/tests`; SERVICES names others by
their service_id."""
import os
import re

import pytest

HERE = os.path.dirname(os.path.realpath(__file__))
CHANNEL = os.path.join(HERE, "..", "programs", "dvbv5.conf")
SERVICES = os.environ.get("SERVICES", "257 258").split()


@pytest.mark.dvb("../programs/scan.ts", packets=3000)
@pytest.mark.parametrize("service", SERVICES)
def test_scanner_finds(dvb_adapter, tmp_path, service):
    dvb_adapter.run(["dvbv5-scan", "-o", "channels", CHANNEL], cwd=tmp_path, check=True, timeout=300)
    found = re.findall(r"SERVICE_ID = (\d+)", (tmp_path / "channels").read_text())
    assert service in found, f"no service {service}; found: {', '.join(found)}"
