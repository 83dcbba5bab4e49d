"""Asks this program and `crm_simulate` of everyday events in nine clusters."""
