"""Pictures and pages: designs, runs, signals, timetables and reports."""
