"""Lets the scripts of this folder import the package office_kit, which lies beside the folder: `from office_kit.audit import rows`."""
import os

# (Python looks there for modules below the name office_kit.)
__path__ = [os.path.join(os.path.dirname(os.path.dirname(os.path.realpath(__file__))), "office_kit")]
