"""Trials of clients/together.

playing    clients of a workload, each behind a recorder
sets       sets of records and times, made by hand
reference  another reading of the protocol, by brute force over all orders
"""
