"""Audits without an application: throwaway servers, client workloads, and tables of which faults
each isolation level has."""
