"""The package's own tests: ``python3 -m unittest discover -t clients/python clients/python/tests``.

They need ``LIBMETSUWAN``, the path of a built library, and openssl; the servers are fakes of
``tools/live``, which a live test has started, or which are started here.
"""
