"""The desk of a fax office, beside faxqd, and the client of the queue that it shares with faxq."""
