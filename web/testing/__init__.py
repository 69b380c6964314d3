"""What web/test runs."""
