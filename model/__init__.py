"""An independent model of `busdma_run`, written from the project's pages alone."""
