"""What the packages of tools/ share: each finds this folder by its own shared.py."""
