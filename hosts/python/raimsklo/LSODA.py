"""Where Python looks for `from raimsklo import LSODA` if the package has no such name, that is, if scipy is missing.

Where scipy is there, `raimsklo.LSODA` is the class in scipy_solver.py.
"""

try:
    from . import scipy_solver  # noqa: F401
except ImportError as missing:
    raise ImportError(
        f"raimsklo.LSODA, a solver class for scipy.integrate.solve_ivp, needs scipy ({missing}); "
        "raimsklo.solve_ivp works without it"
    ) from missing
raise ImportError("raimsklo.LSODA is a class, not a module: from raimsklo import LSODA")
