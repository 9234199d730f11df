"""Document 01's cases: each string, and what it is under Bech32, under Bech32m and as a segwit address. None where document 01 does not say."""

CASES = [
    ("bc1pdp43hj65vxw49rts6kcw35u6r6tgzguyr03vvveeewjqpn05efzq7un9w0", (9, None, 0)),
    ("abcd14g08d6qejxtdg4y5r3zarvary0c5xw7kxugcx9", (0, 9, 12)),
    ("abcd14g08d6qejxtdg4y5r3zarvary0c5xw7knqc5r8", (None, 0, None)),
    ("bc1qar0srrr7xfkvy5l643lydnw9re59gtzzwf5mdq", (0, None, None)),
    ("bc1qar0srrr7xfkvy5l643lydnw9re59gtzzffffff", (9, None, None)),
]
