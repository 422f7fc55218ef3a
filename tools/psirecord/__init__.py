"""The recorder, `tools/record`. It is the only tool that runs as root on the recorded machine, so
it imports no other package except `psirec`.
"""
