sig good.
kind k type.
