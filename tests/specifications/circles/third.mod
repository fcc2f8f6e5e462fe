module third.
accumulate modules.
