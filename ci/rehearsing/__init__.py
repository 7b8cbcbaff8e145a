"""What ci/rehearsals tries: masters with real workers and real new masters."""
