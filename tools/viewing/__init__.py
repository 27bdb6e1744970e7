"""What tools/view draws a report with."""
