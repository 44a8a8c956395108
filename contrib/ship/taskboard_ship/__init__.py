"""The modules of the command taskboard-ship."""
