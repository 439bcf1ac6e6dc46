"""The conformance suite: vectors, volumes, a readable model of the machine, adapters to emulators, and reports."""
