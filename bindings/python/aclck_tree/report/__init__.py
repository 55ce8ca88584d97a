"""The command `report`: a page for people, with what an auditor looks for first."""
