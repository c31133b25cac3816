"""The errors of all calls, named as the library names them."""

DECODE_NAMES = (
    'Truncated', 'BadLength', 'BadTag', 'BadValue', 'Trailing', 'TooDeep',
    'Missing', 'Duplicate', 'Critical', 'NotCritical', 'UnexpectedCritical',
    'InvalidExtension', 'WrongResources', 'AlgorithmMismatch')
VERIFICATION_NAMES = (
    'NotYetValid', 'Expired', 'InheritedV4', 'InheritedV6', 'InheritedAs',
    'MissingKeyId', 'WrongKeyId', 'MissingIssuerUri', 'BadSignature',
    'OverclaimV4', 'OverclaimV6', 'OverclaimAs')


class Refusal(Exception):
    """An error with the name of its variant and what stands inside it."""

    def __init__(self, name, detail=None):
        super().__init__(name if detail is None else f'{name}({detail})')
        self.name, self.detail = name, detail


class DecodeError(Refusal):
    pass


class InspectionError(Refusal):
    pass


class VerificationError(Refusal):
    pass


class RevocationError(Refusal):
    pass


class RearrangeError(Refusal):
    pass


class LocatorError(Refusal):
    pass


class PathError(Exception):
    """The index of the refused member, the stage, and the error inside."""

    def __init__(self, index, stage, fault):
        super().__init__(f'{index} {stage} {fault}')
        self.index, self.stage, self.fault = index, stage, fault
