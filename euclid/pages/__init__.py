"""A library as a site of plain files: every step, by what it is licensed, with its figure."""
