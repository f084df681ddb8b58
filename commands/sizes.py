"""The limits that the scripts of these tests go up to."""

MOST_SESSIONS = 1024
