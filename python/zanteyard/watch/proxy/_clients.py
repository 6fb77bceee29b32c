"""How the proxy lets applications in: the options that `watch` and `proxy` share, and the proxy
program's arguments for them."""

import argparse


def add_clients(command: argparse.ArgumentParser) -> None:
    command.add_argument(
        "--tls-cert", metavar="FILE",
        help="the certificate by which applications can use TLS to the proxy (with --tls-key)",
    )
    command.add_argument("--tls-key", metavar="FILE", help="the key of that certificate")
    command.add_argument(
        "--require-tls", action="store_true",
        help="refuse applications without TLS, except those by a Unix socket",
    )
    command.add_argument(
        "--trust-clients", action="store_true",
        help="let applications in whom the server asks for no password, by trust, peer or ident in "
        "its pg_hba.conf: it takes everybody who reaches the proxy for the proxy",
    )


def mistake_in(asked: argparse.Namespace) -> str | None:
    """What is wrong with these options; None if nothing is."""
    if (asked.tls_cert is None) != (asked.tls_key is None):
        return "--tls-cert and --tls-key belong together"
    if asked.require_tls and asked.tls_cert is None:
        return "--require-tls needs --tls-cert and --tls-key"
    return None


def words_for(asked: argparse.Namespace) -> list[str]:
    """Arguments for the proxy's program."""
    words = []
    if asked.tls_cert is not None:
        words += ["--tls-cert", asked.tls_cert, "--tls-key", asked.tls_key]
    if asked.require_tls:
        words.append("--require-tls")
    if asked.trust_clients:
        words.append("--trust-clients")
    return words
