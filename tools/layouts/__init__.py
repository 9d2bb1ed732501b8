"""What tools/layout.py is made of: packets field by field (packets.py) and pages (page.py)."""
