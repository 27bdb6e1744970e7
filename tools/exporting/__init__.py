"""How tools/export writes algorithms."""
