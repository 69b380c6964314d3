"""The gateway: `tp serve` over HTTP."""
