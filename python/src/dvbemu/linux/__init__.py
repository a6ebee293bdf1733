"""What Linux 6.1 answers to a session: a model of its demux and dvr devices, held against what that kernel's code answered."""
