"""Tests of the client. Those that need a server run where WIRGATSU_PROGRAM names the catalogue's program."""
