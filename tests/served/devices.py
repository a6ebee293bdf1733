#!/usr/bin/env python3
"""A small program that asks libudev: devices.py SUBSYSTEM .. says which devices each has, and whether all else that
the library has is there: an enumeration by a property, a monitor. Where there is no libudev it says so."""
import ctypes
import sys


def library():
    """libudev's calls, as the program has them: those of a preload too."""
    ctypes.CDLL("libudev.so.1", mode=ctypes.RTLD_GLOBAL)
    udev = ctypes.CDLL(None)
    for name in ("udev_new", "udev_enumerate_new", "udev_enumerate_get_list_entry", "udev_list_entry_get_next",
                 "udev_list_entry_get_name", "udev_device_new_from_syspath", "udev_device_get_devnode", "udev_device_get_sysname",
                 "udev_device_get_property_value", "udev_monitor_new_from_netlink"):  # fmt: skip
        getattr(udev, name).restype = ctypes.c_void_p
    return udev


def text(address):
    return ctypes.string_at(address).decode() if address else "-"


def enumerated(udev, context, *match):
    """The names of devices that match a subsystem, or a property and its value."""
    found = ctypes.c_void_p(udev.udev_enumerate_new(context))
    words = [word.encode() for word in match]
    (udev.udev_enumerate_add_match_property if words[1:] else udev.udev_enumerate_add_match_subsystem)(found, *words)
    udev.udev_enumerate_scan_devices(found)
    entry = udev.udev_enumerate_get_list_entry(found)
    while entry:
        yield text(udev.udev_list_entry_get_name(ctypes.c_void_p(entry)))
        entry = udev.udev_list_entry_get_next(ctypes.c_void_p(entry))
    udev.udev_enumerate_unref(found)


def main(subsystems):
    try:
        udev = library()
    except OSError:
        print("no libudev")
        return
    context = ctypes.c_void_p(udev.udev_new())
    for subsystem in subsystems:
        for path in enumerated(udev, context, subsystem):
            device = ctypes.c_void_p(udev.udev_device_new_from_syspath(context, path.encode()))
            kind = udev.udev_device_get_property_value(device, b"DVB_DEVICE_TYPE")
            print(subsystem, text(udev.udev_device_get_sysname(device)), text(udev.udev_device_get_devnode(device)), text(kind))
            udev.udev_device_unref(device)
    print("loopback", *enumerated(udev, context, "INTERFACE", "lo"))
    monitor = ctypes.c_void_p(udev.udev_monitor_new_from_netlink(context, b"udev"))
    print("monitor", bool(monitor) and udev.udev_monitor_get_fd(monitor) >= 0)


if __name__ == "__main__":
    main(sys.argv[1:])
