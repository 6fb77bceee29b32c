package session

import (
	"bytes"

	"zanteyard/wire"
)

const saslOffer = 10

// WithoutBinding returns an offer of SASL mechanisms without those that bind to a TLS channel; any other message as it
// is. SCRAM itself passes through the proxy, which learns nothing of the password. But SCRAM-SHA-256-PLUS
// signs the certificate that the client sees, and the proxy ends TLS: the client sees the proxy's certificate, and the
// proxy the server's. A client that uses TLS to the proxy then says that it could bind but wasn't offered to; if the
// proxy also uses TLS to the server, the server takes that for an attack. Such clients have to say
// channel_binding=disable.
func WithoutBinding(m []byte) []byte {
	if m[0] != 'R' || wire.Int32(m[wire.Header:]) != saslOffer || !bytes.Contains(m, []byte("-PLUS\x00")) {
		return m
	}
	to := append(wire.Begin(nil, 'R'), 0, 0, 0, saslOffer)
	for rest := m[wire.Header+4:]; len(rest) > 0 && rest[0] != 0; {
		name, next, ok := wire.Text(rest)
		if !ok {
			return m
		}
		if !bytes.HasSuffix(name, []byte("-PLUS")) {
			to = append(append(to, name...), 0)
		}
		rest = next
	}
	return wire.End(append(to, 0), 0)
}
