"""What ci/children tries: masters with real workers and real new masters."""
