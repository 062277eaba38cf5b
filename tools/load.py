#!/usr/bin/env python3
"""Prints a script of 4,096 transactions of 16 writes each, by 64 clients in 8 columns, on 256 keys."""
print("meerkat 1\nsize 1")
for client in range(64):
    print(f"client c{client} {client % 8} {client % 3}")
for txn in range(4096):
    items = " ".join(f"w:k{(txn * 16 + item) % 256}={txn * 16 + item}" for item in range(16))
    print(f"txn c{txn % 64} {txn + 10} {items}")
