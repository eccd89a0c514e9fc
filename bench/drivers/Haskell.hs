-- haskell-src-exts: parses the modules of the files. Ends with status 0 where all are permitted.
module Main (main) where

import Language.Haskell.Exts
import System.Environment (getArgs)
import System.Exit (exitFailure)
import System.IO

permitted :: String -> IO Bool
permitted name = do
  file <- openFile name ReadMode
  hSetEncoding file utf8
  text <- hGetContents file
  case parseFileContentsWithMode defaultParseMode { baseLanguage = Haskell2010, parseFilename = name } text of
    ParseOk _ -> return True
    ParseFailed place why -> hPutStrLn stderr (prettyPrint place ++ ": " ++ why) >> return False

main :: IO ()
main = do
  found <- mapM permitted =<< getArgs
  if and found then return () else exitFailure
