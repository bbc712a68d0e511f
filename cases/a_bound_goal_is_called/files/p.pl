e(X,X). q(_).
