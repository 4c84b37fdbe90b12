import pk.local
