"""`python3 -m der_asn1`, from the folder `tools`."""
import sys

from .command import main

sys.exit(main())
