"""The version of the package. In a wheel it is that of the wheel, with what its library is."""
__version__ = '2.0'
