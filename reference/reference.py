"""All of the reference under one name: `import reference as ref`."""

from refusals import *  # noqa: F401,F403
from der import *  # noqa: F401,F403
from values import *  # noqa: F401,F403
from resources import *  # noqa: F401,F403
from uris import *  # noqa: F401,F403
from parts import *  # noqa: F401,F403
from extensions import *  # noqa: F401,F403
from certificates import *  # noqa: F401,F403
from profiles import *  # noqa: F401,F403
from verification import *  # noqa: F401,F403
from lists import *  # noqa: F401,F403
from paths import *  # noqa: F401,F403
from locators import *  # noqa: F401,F403
from program import *  # noqa: F401,F403
