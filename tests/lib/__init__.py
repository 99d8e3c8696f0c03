"""What tests share: counting, running a program, libraries loaded before it."""
