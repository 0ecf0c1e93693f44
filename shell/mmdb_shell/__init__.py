"""The shell of mmdb: a prompt for people, and files of command lines."""
