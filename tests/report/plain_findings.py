"""Does what pim-findings does, by the plain implementations: writes rows, or with --spans spans."""
import pathlib
import sys

sys.path.append(str(pathlib.Path(__file__).resolve().parents[1] / "facts/plain"))
import rows
import spans

if "--spans" in sys.argv:
    sys.argv.remove("--spans")
    sys.exit(spans.main())
sys.exit(rows.main())
