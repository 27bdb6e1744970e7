"""What tests/view looks at a page with."""
