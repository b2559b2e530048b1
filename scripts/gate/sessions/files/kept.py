total: int = 1
name: str = 2
