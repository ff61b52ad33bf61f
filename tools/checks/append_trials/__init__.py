"""What tools/checks/append tries of `weoldrin append`."""
