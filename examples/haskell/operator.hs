main = do
    first
    second
  <|> third
