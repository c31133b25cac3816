"""Keys of RSA that sign, made by chance: the same ones in each run that makes as many."""

import math

import reference as ref
import rsa
import signatures

EXPONENT = 65537


class Signer:
    """A private key of four primes, whose powers are taken by the remainders of each (RFC 8017 3.2,
    5.2.1): in a quarter of the time that two primes take, and who verifies sees no difference."""

    def __init__(self):
        primes = []
        while len(set(primes)) < 4 or math.prod(primes).bit_length() < 2048:
            primes = [signatures.prime(512, EXPONENT) for _ in range(4)]
        self.modulus = math.prod(primes)
        self.bits = signatures.sequence(*map(signatures.integer, (self.modulus, EXPONENT)))
        self.key = ref.Key(ref.RSA, self.bits)
        rests = [self.modulus // p for p in primes]
        self.powers = [(pow(EXPONENT, -1, p - 1), p, rest * pow(rest, -1, p))
                       for p, rest in zip(primes, rests)]

    def sign(self, message):
        block = int.from_bytes(rsa.encoded_message(message), 'big')
        root = sum(pow(block, power, p) * one for power, p, one in self.powers) % self.modulus
        return root.to_bytes(256, 'big')

    def signed(self, message):
        return ref.SignedData(message, True, self.sign(message)).octets()
