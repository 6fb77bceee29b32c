package main

import (
	"crypto/tls"
	"fmt"
	"log"
	"sync/atomic"
)

// certificate is the certificate for clients' TLS. It can be read anew when its files were renewed.
type certificate struct {
	file, key string
	its       atomic.Pointer[tls.Certificate]
}

// readCertificate reads a certificate and its key.
func readCertificate(file, key string) (*certificate, error) {
	c := &certificate{file: file, key: key}
	return c, c.read()
}

// read reads the files. If that fails, the certificate stays what it was.
func (c *certificate) read() error {
	pair, err := tls.LoadX509KeyPair(c.file, c.key)
	if err != nil {
		return fmt.Errorf("--tls-cert and --tls-key: %w", err)
	}
	c.its.Store(&pair)
	return nil
}

// reload reads the files anew, and says so.
func (c *certificate) reload() {
	if err := c.read(); err != nil {
		log.Print("SIGHUP: the old certificate stays: " + err.Error())
		return
	}
	log.Print("SIGHUP: the certificate was read anew")
}

// config is for connections that begin: each takes the certificate that was read last.
func (c *certificate) config() *tls.Config {
	return &tls.Config{MinVersion: tls.VersionTLS12,
		GetCertificate: func(*tls.ClientHelloInfo) (*tls.Certificate, error) { return c.its.Load(), nil }}
}
