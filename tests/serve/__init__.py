"""`grace serve` over WebSocket, `grace watch` and the terminal client."""
