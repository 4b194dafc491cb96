"""Cases, storms and switchings by chance and by rule, and changes of files and reports; README.md has its modules."""
