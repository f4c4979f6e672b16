"""The auditor of records: read `journal.py` first."""
