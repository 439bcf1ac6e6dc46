"""What makes files: archives and programs, pages, completions, rows and volumes."""
