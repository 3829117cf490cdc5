//! Nothing: its build script makes the workspace ready.
