raise ValueError("never caught")
