#!/usr/bin/env python3
"""Writes crates/key_vectors/stdout: the keys that the program is to print, by Python's SHA-256.

What is hashed is written down from `DedupKey::compute` and `feed_to_hasher` of the Rust and from document 01, "The key"."""
import hashlib
from pathlib import Path

NAMES = """config-apply-failed config-drift-detected certificate-expiring certificate-expired identity-unavailable
authorization-policy-invalid session-store-unavailable lease-lost backend-timeout nrf-unreachable sbi-overload
peer-unreachable packet-drop-threshold dataplane-preflight-failed storage-corruption audit-chain-invalid key-unavailable
li-delivery-failed charging-export-failed privacy-policy-violation security-break-glass""".split()

CALL = "".join(chr(97 + i % 26) for i in range(256))


def part(at, length):
    return CALL[at:at + length]


def feed(field):
    data = field.encode()
    return len(data).to_bytes(4, "big") + data


def feed_opt(field):
    return b"\0" if field is None else b"\1" + feed(field)


def key(alarm_type, cause, tag, fields, shard, tenant, slice_, region):
    """shard: the bytes fed for kind 4's shard, none for other kinds."""
    fed = feed(alarm_type) + feed(cause) + feed(tag) + b"".join(feed(f) for f in fields) + shard
    fed += feed_opt(tenant) + feed_opt(slice_) + feed_opt(region)
    return hashlib.sha256(fed).hexdigest()[:32]


def kinds(n, queue, cause, tenant, slice_, region):
    a, b = part(3, n), part(70, n)
    objects = [
        ("NfInstance", [a, b], b""),
        ("Interface", [a, b], b""),
        ("Peer", [a, b], b""),
        ("SessionStore", [a], feed_opt(None)),
        ("SessionStore", [a], feed_opt(b)),
        ("Slice", [a], b""),
        ("Tenant", [a], b""),
        ("Certificate", [a], b""),
        ("DataPlaneQueue", [a, b, str(queue)], b""),
    ]
    return [key(part(130, n), cause, tag, fields, shard, tenant, slice_, region) for tag, fields, shard in objects]


long, region = part(100, 64), part(128, 128)
other, longest = "other:" + part(40, 3), "other:" + part(40, 90)
keys = (
    kinds(0, 0, NAMES[7], None, None, None)
    + kinds(1, 9, NAMES[5], "", None, None)
    + kinds(5, 10, other, None, "", None)
    + kinds(63, 999, NAMES[20], None, None, "")
    + kinds(9, 1000, other, long, None, region)
    + kinds(64, 65535, longest, long, long, region)
    + [key(part(130, 1), name, "Tenant", [part(3, 4)], b"", None, None, None) for name in NAMES]
)
stdout = Path(__file__).resolve().parents[2] / "crates" / "key_vectors" / "stdout"
stdout.write_text("".join(k + "\n" for k in keys))
