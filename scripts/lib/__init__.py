"""What several scripts import; none of these files is run by itself."""
