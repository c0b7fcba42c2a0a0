"""The trials of tests/test-walk, by subject:

runs     runs clients/walk, and reads what it printed
hostile  servers that mean harm to whoever walks through them
walks    walks through these and through right ones, and bad usage
ends     walks that are ended, paused, or get too little memory or room
between  servers with one fault each
faults   walks through these, and walks that find no room in the middle
apart    sessions of the probe that look first
"""
