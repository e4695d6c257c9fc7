"""One HTML page of a report: its numbers, its axis, its backlogs, and the document."""
